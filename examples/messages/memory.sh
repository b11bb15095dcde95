(ulimit -v 60000; { printf '\132\4\0\0\0'; head -c 67108864 /dev/zero; } | "$swid" links)
