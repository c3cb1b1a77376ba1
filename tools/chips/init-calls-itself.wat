(module (func $chipInit (export "chipInit") (call $chipInit)))
