"$swid" tag --verify </dev/null
