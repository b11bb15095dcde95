"$swid" tag verify <folder.coswid
