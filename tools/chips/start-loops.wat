(module (func $chipInit (export "chipInit")) (func $s (loop (br 0))) (start $s))
