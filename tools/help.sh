# For shell scripts, which read this first: `--help` prints the comment at the head of the script, with status 0.
if [ "${1-}" = --help ]; then
    sed -n '1d; /^#/!q; s/^# \{0,1\}//p' "$0"
    exit 0
fi
