"$swid"
