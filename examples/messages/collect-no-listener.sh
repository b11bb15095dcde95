# 192.0.2.1 is kept for documents (RFC 5737), so no machine has this address.
"$swid" collect --listen 192.0.2.1:4050 --epoch 7
