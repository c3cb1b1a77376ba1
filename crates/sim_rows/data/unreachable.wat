(module (func $chipInit (export "chipInit") unreachable))
