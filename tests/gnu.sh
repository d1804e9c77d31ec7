# Links of GNU ld that lay parts out as packages do, for the scripts that compare with it. It is sourced and never run.

# Reads BASE.o. BASE.layout has its sections by part, as lines of a linker script; BASE.symbols the names that it gives and needs;
# BASE.gnu.o is the object for GNU ld, which would keep equal strings of sections that may be merged once, which nothing asks it to: this
# copy has no such sections.
prepare_object() { # BASE
  local base=$1 section flags=()
  : >"$base.layout"
  : >"$base.symbols"
  while read -r section; do flags+=(--set-section-flags "$section=alloc,load,readonly,data,contents"); done < <(
    avr-readelf -SsW "$base.o" | awk -v base="$base" '
      /^ *\[ *[0-9]+\] / {
        sub(/^ *\[ *[0-9]+\] /, "")
        flags = NF == 10 ? $7 : ""
        if (flags !~ /A/) next
        part = $2 == "NOBITS" ? "bss" : flags ~ /X/ || $1 ~ /^\.(progmem|jumptables)/ ? "code" : "data"
        print part, "\"" base ".gnu.o\"(" $1 ") . = ALIGN(2);" >(base ".layout")
        if (flags ~ /M/) print $1
      }
      ($5 == "GLOBAL" || $5 == "WEAK") && NF == 8 {
        if ($7 != "UND") print "gives", $8 >(base ".symbols")
        else if ($5 == "GLOBAL") print "needs", $8 >(base ".symbols")
      }'
  )
  if [ ${#flags[@]} -gt 0 ]; then avr-objcopy "${flags[@]}" "$base.o" "$base.gnu.o"; else cp "$base.o" "$base.gnu.o"; fi
}

# The linker script of a set: code, then data, then bss, each by component and section, and each section filled to even.
set_script() { # BASE..
  local base
  echo 'SECTIONS {'
  echo '  .text 0 : {'
  for base in "$@"; do sed -n 's/^code //p' "$base.layout"; done
  echo '  }'
  echo '  .data 0x800100 : AT (SIZEOF (.text)) {'
  for base in "$@"; do sed -n 's/^data //p' "$base.layout"; done
  echo '  }'
  echo '  .bss 0x800100 + SIZEOF (.data) (NOLOAD) : {'
  for base in "$@"; do sed -n 's/^bss //p' "$base.layout"; done
  cat <<'END'
  }
  __data_start = 0x800100;
  __data_end = 0x800100 + SIZEOF (.data);
  __data_load_start = SIZEOF (.text);
  __bss_start = 0x800100 + SIZEOF (.data);
  __bss_end = 0x800100 + SIZEOF (.data) + SIZEOF (.bss);
  __heap_start = __bss_end;
  __stack = 0x8010ff;
}
END
}

# Links a set; what ld says goes to IMAGE.errors, and its status is answered.
gnu_link() { # IMAGE BASE..
  local image=$1 objects=() base status
  shift
  for base in "$@"; do objects+=("$base.gnu.o"); done
  set_script "$@" >"$image.ld"
  avr-ld --no-relax -m avr51 -e 0 -T "$image.ld" "${objects[@]}" -o "$image.elf" 2>"$image.errors"
  status=$?
  if [ $status = 0 ]; then avr-objcopy -O binary -j .text -j .data "$image.elf" "$image" 2>/dev/null; fi
  return $status
}

# Two objects give one name the same number, which GNU ld takes for one definition and we for two.
same_number() { # BASE..
  local base
  for base in "$@"; do avr-nm -g "$base.o" | awk '$2 == "A" { print $3, $1 }' | sort -u; done | sort | uniq -d | grep -q .
}

# What an image prints in simavr, each character of the simulator's output but colours and its dots for line ends.
said() { # IMAGE
  avr-objcopy -I binary -O ihex "$1" "$1.hex"
  timeout 20 simavr -m atmega128 -f 8000000 "$1.hex" 2>&1 | sed 's/\x1b\[[0-9;]*m//g; s/\.*$//' | grep '^mote: '
}
