# shellcheck shell=sh
# For the scripts that have rt make something: `. tools/made.sh`, from the top of the repository.

# What is under way is told on descriptor 3. A caller that keeps both streams back opens it; else it is standard error.
# shellcheck disable=SC2188
(: >&3) 2>/dev/null || exec 3>&2

# Whether a file that was made is still good: newer than all that it comes from. That is everything below crates/, but for what rt keeps in out/.
is_good() { # FILE
    [ -f "$1" ] && [ -z "$(find crates crates.txt -path 'crates/*/out' -prune -o -type f -newer "$1" -print | head -n 1)" ]
}
