# For the scripts of this folder, which read it with `here` set to the folder: the boards that they measure.
# shellcheck shell=bash disable=SC2154

# Makes a chip in the current folder of chips/NAME.c, with pins A, B and C. Needs clang and wasm-ld.
chip() { # NAME WORDS-FOR-THE-LINKER
    local name=$1
    shift
    "$here/../sdk/build.sh" "$@" -o "$name.wasm" "$here/chips/$name.c"
    echo '{ "name": "It", "pins": ["A", "B", "C"] }' >"$name.json"
}

# Makes a folder of an Uno, further parts and wires. The firmware is that of bench/, or a whole path, or `-` for a core that is
# halted. The chip, of type chip-it, is one of the current folder, or `-` for none.
board() { # NAME FIRMWARE CHIP PARTS WIRES; a part is a line `TYPE ID`, a wire a line `PIN PIN`
    mkdir "$1"
    case $2 in
    -) echo ':00000001FF' >"$1/firmware.hex" ;;
    /*) cp "$2" "$1/firmware.hex" ;;
    *) cp "$here/$2.hex" "$1/firmware.hex" ;;
    esac
    printf "[wokwi]\nversion = 1\nfirmware = 'firmware.hex'\n" >"$1/wokwi.toml"
    if [ "$3" != - ]; then
        printf "[[chip]]\nname = 'it'\nbinary = 'it.wasm'\n" >>"$1/wokwi.toml"
        cp "$3.wasm" "$1/it.wasm"
        cp "$3.json" "$1/it.json"
    fi
    {
        echo '{ "version": 1, "author": "bench", "editor": "wokwi", "parts": ['
        printf 'wokwi-arduino-uno uno\n%s\n' "${4:-}" |
            awk 'NF { printf "%s{ \"type\": \"%s\", \"id\": \"%s\", \"attrs\": {} }\n", n++ ? ", " : "", $1, $2 }'
        echo '], "connections": ['
        printf '%s\n' "${5:-}" | awk 'NF { printf "%s[ \"%s\", \"%s\", \"green\", [] ]\n", n++ ? ", " : "", $1, $2 }'
        echo '], "dependencies": {} }'
    } >"$1/diagram.json"
}

# Lines for `board`: parts of one type, whose names are a word and a number, and wires from a pin to a pin of each of them.
parts() { # COUNT TYPE WORD
    awk -v n="$1" -v type="$2" -v name="$3" 'BEGIN { for (i = 1; i <= n; i++) print type, name i }'
}
wires() { # COUNT PIN WORD PIN-OF-THE-PART
    awk -v n="$1" -v pin="$2" -v name="$3" -v other="$4" 'BEGIN { for (i = 1; i <= n; i++) print pin, name i ":" other }'
}
cathodes() { # COUNT: of the LEDs l1, l2 .., at ground by one wire
    echo 'uno:GND.1 l1:C'
    wires "$1" l1:C l C | tail -n +2
}
