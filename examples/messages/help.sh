"$swid" --help
