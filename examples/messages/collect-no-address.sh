"$swid" collect --listen nowhere --epoch 7
