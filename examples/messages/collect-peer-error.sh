# A client closes its session with an Error (RFC 5793, sections 4.1 and 4.9): fatal, of vendor 0,
# "Local Error".
client() {
    exec 3<>/dev/tcp/127.0.0.1/4053 &&
        printf '\2\200\0\6\0\0\0\34\200\0\0\0\0\0\0\5\0\0\0\24\200\0\0\0\0\2\0\0' >&3 && cat <&3
}
(until client; do sleep 0.1; done) >/dev/null 2>&1 &
trap 'kill $! 2>/dev/null' EXIT
"$swid" collect --listen 127.0.0.1:4053 --epoch 7 --workers 1
