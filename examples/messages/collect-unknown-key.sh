"$swid" collect --listen nowhere --epoch 7 unknown.lines
