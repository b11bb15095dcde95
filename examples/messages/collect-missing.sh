"$swid" collect --listen nowhere --epoch 7 missing.lines
