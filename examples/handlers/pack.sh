#!/bin/sh
# A handler of jobs in shell: jagyerti run URL orders packers --from 0 -- sh pack.sh packed.txt
while IFS= read -r job; do
    case $job in
    *'"item"'*) printf '%s\n' "$job" >>"$1" && echo done || echo later the file cannot be written ;;
    *) echo later no item yet ;;
    esac
done
