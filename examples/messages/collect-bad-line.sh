"$swid" collect --listen nowhere --epoch 7 bad.lines
