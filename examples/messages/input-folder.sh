"$swid" mirror ids <.
