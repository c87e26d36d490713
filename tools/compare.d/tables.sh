# The tables of tools/compare. They read $present, the programs that are there, and keep in $count what the first table says in
# short.
# shellcheck shell=bash disable=SC2154

thousands() { sed -E ':a; s/^([0-9]+)([0-9]{3})/\1,\2/; ta' <<< "$1"; }

# A row of a table.
row() {
    printf '|'
    printf ' %s |' "$@"
    printf '\n'
}

heading() {
    row "$@"
    printf '|'
    printf -- '---|%.0s' "$@"
    printf '\n'
}

# Adds one to what is counted under a name.
one_more() { count[$1]=$((${count[$1]:-0} + 1)); }

# The steps in one cell, each with its bytes taken; equal neighbours stand once, with their number.
cell_of_steps() {
    awk -F '\t' '
        function put() { if (n) cell = cell (cell == "" ? "" : "; ") (n > 1 ? n " x " : "") last }
        { this = "(" $2 ") `" $4 "`" }
        this != last { put(); n = 0; last = this }
        { n++ }
        END { put(); print cell == "" ? "no line" : cell }' "$work/steps"
}

# The first step, as the patterns of the lists have it.
first_step() { awk -F '\t' 'NR == 1 { print $3 == "refused" ? $3 : $2 " " $3 " " tolower($4) }' "$work/steps"; }

# A row for each string of a list, with each program's answer; judged where the list has patterns.
answers() {
    local name=$1 string meaning pattern program cell cells
    while IFS=';' read -r string meaning pattern; do
        read -r string <<< "$string"
        [ -n "$string" ] || continue
        bytes "$string" > "$work/string"
        cells=("\`$string\`")
        read -r meaning <<< "$meaning"
        read -r pattern <<< "$pattern"
        [ -z "$pattern" ] || cells+=("$meaning")
        one_more "rows $name"
        for program in "${present[@]}"; do
            run "$program" string
            cell=$(cell_of_steps)
            if [ -z "$pattern" ]; then
                count["lines $name $program"]+="$(wc -l < "$work/steps") "
            elif first_step | grep -qE "^($pattern)"; then
                one_more "$name $program"
            else
                cell="no: $cell"
            fi
            cells+=("$cell")
        done
        row "${cells[@]}"
    done <<< "${!name}"
}

# For each pair of $work/pairs: its first byte and reg, and near, far or, where no call, jump or return is printed, neither.
distance_of() {
    run "$1" pairs
    awk -F '\t' '
        $1 % 16 == 0 {
            n = $1 / 16
            text = tolower($4)
            far = text ~ /^(lcall|ljmp|lret|retf)|^(call|jmp|ret) (far|dword)|^(call|jmp) 0x[0-9a-f]+:/
            near = text ~ /^(call|jmp|ret)/
            printf "%02X /%d%s\t%s\n", n / 16, n % 8, n % 16 < 8 ? "" : " mod 3", far ? "far" : near ? "near" : "neither"
        }' "$work/steps"
}

# How many pairs each program takes for near, far and neither as Sangkelod does, and which not.
distances() {
    local program
    distance_of Sangkelod > "$work/own"
    heading program near far neither "not alike: Sangkelod's word, the program's, and where"
    for program in "${present[@]}"; do
        [ "$program" != "the given Rust" ] || continue
        distance_of "$program" > "$work/other"
        paste "$work/own" "$work/other" | awk -F '\t' -v program="$program" '
            $2 == $4 { alike[$2]++; next }
            {
                words = $2 " and " $4
                if (!(words in where))
                    order[++kinds] = words
                where[words] = (where[words] == "" ? "" : where[words] ", ") $1
            }
            END {
                for (i = 1; i <= kinds; i++)
                    cell = cell (i > 1 ? "; " : "") order[i] ": " where[order[i]]
                printf "| %s | %d | %d | %d | %s |\n", program, alike["near"], alike["far"], alike["neither"], cell
            }'
    done
}

# How the last run ended, over an input of so many bytes: listed where every byte stands in a line and the exit status is 0.
ending() {
    local said
    if [ "$status" -eq 124 ]; then
        echo "not ended after $patience s"
    elif [ "$status" -gt 128 ]; then
        echo "killed by SIG$(kill -l $((status - 128)))"
    elif [ "$status" -eq 0 ] && [ "$(bytes_in_steps)" -eq "$1" ]; then
        echo "lines: $(thousands "$(wc -l < "$work/steps")")"
    else
        said=$(cat "$work/said" "$work/noise" | sed -n 1p)
        echo "not listed, exit $status, says $([ -n "$said" ] && echo "\`$said\`" || echo nothing)"
    fi
}

endings() {
    local what string file program cell cells
    while IFS=';' read -r what string; do
        read -r what <<< "$what"
        read -r string <<< "$string"
        [ -n "$what" ] || continue
        file=$string
        if [ ! -f "$work/$file" ]; then
            file=string
            bytes "$string" > "$work/string"
        fi
        one_more "rows inputs"
        cells=("$what")
        for program in "${present[@]}"; do
            run "$program" "$file"
            cell=$(ending "$(wc -c < "$work/$file")")
            case $cell in
                lines:*) one_more "listed $program" ;;
                "not listed"*) one_more "not listed $program" ;;
                *) one_more "cut off $program" ;;
            esac
            cells+=("$cell")
        done
        row "${cells[@]}"
    done <<< "$inputs"
}

# Bytes in lines over a file; lines refused; how far on from each of them the next line starts.
coverage() {
    run "$1" "$2"
    thousands "$(bytes_in_steps)"
    thousands "$(awk -F '\t' '$3 == "refused" { n++ } END { print n + 0 }' "$work/steps")"
    awk -F '\t' '
        $3 == "refused" { if (!least || $2 < least) least = $2; if ($2 > most) most = $2 }
        END { print !most ? "-" : least == most ? least : least " to " most }' "$work/steps"
}

resynchronised() {
    local program cells
    heading program "the image: bytes in lines" "lines refused" "next line, bytes on" \
        "pseudo-random: bytes in lines" "lines refused" "next line, bytes on"
    for program in "${present[@]}"; do
        { coverage "$program" image; coverage "$program" random; } > "$work/cells"
        mapfile -t cells < "$work/cells"
        count["once $program"]="${cells[0]}, ${cells[3]}"
        row "$program" "${cells[@]}"
    done
}

# The instructions that a program runs over a file, from start to end, counted by callgrind.
instructions() {
    local words
    command_of "$1" "$2"
    [ "$1" != "the given Rust" ] || words[1]=count
    (cd "$work" && valgrind --tool=callgrind --callgrind-out-file=/dev/null "${words[@]}" 2>&1 < "$2" > said) |
        sed -n 's/.*Collected : *//p'
}

speeds() {
    local program listed all short long
    bytes "26*1024" > "$work/short"
    bytes "26*4096" > "$work/long"
    heading program "lines of the image" "instructions in all" "a line" \
        "1,024 of 26, in all" "4,096 of 26, in all" "the latter beside the former"
    for program in "${present[@]}"; do
        run "$program" image
        listed=$(wc -l < "$work/steps")
        all=$(instructions "$program" image)
        short=$(instructions "$program" short)
        long=$(instructions "$program" long)
        count["speed $program"]=$(thousands $((all / listed)))
        count["growth $program"]=$(awk -v a="$long" -v b="$short" 'BEGIN { printf "%.1f", a / b }')
        row "$program" "$(thousands "$listed")" "$(thousands "$all")" "${count["speed $program"]}" \
            "$(thousands "$short")" "$(thousands "$long")" "${count["growth $program"]}"
    done
}

# The first three strings of the edges are the runs.
summary() {
    local program runs
    heading program "not read as a later processor does, of ${count["rows later"]}" \
        "read as an 8086 does, of ${count["rows own"]}" \
        "inputs listed / not listed / cut off, of ${count["rows inputs"]}" "lines for 15, 16, 255 overrides and \`8B 07\`" \
        "cost of 4,096 overrides beside 1,024" "bytes in lines: image, pseudo-random" "instructions a line"
    for program in "${programs[@]}"; do
        if [ -n "${missing[$program]:-}" ]; then
            row "$program" "not installed: ${package[$program]:-tools/oracle says what is missing}" "" "" "" "" "" ""
            continue
        fi
        read -ra runs <<< "${count["lines edges $program"]}"
        row "$program" "${count["later $program"]:-0}" "${count["own $program"]:-0}" \
            "${count["listed $program"]:-0} / ${count["not listed $program"]:-0} / ${count["cut off $program"]:-0}" \
            "${runs[0]}, ${runs[1]}, ${runs[2]}" "${count["growth $program"]}" "${count["once $program"]}" \
            "${count["speed $program"]}$([ "$program" != "the given Rust" ] || echo ", no text")"
    done
}

# The version of a Debian package.
version_of() { echo "$1 $(dpkg-query -W -f '${Version}' "$1" 2> /dev/null || echo "of unknown version")"; }

# What each program is, and the command as it was run, with its path left out.
commands() {
    local program words version what
    heading program "built by, or package" command
    for program in "${present[@]}"; do
        command_of "$program" IMAGE
        words[0]=$(basename "${words[0]}")
        what=
        case $program in
            Sangkelod) version="this repository" ;;
            "the given Rust")
                version=$(rustc --version | cut -d' ' -f1,2)
                what=", of rust/differential; for instructions \`given count\`" ;;
            *) version=$(version_of "${package[$program]}") ;;
        esac
        case $program in
            Capstone) what=", of tools/compare.d: cs_disasm, CS_MODE_16" ;;
            Zydis) what=", of tools/compare.d: ZYDIS_MACHINE_MODE_REAL_16" ;;
        esac
        row "$program" "$version" "\`${words[*]} < IMAGE\`$what"
    done
}
