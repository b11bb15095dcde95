"$swid" mirror ids <../mirror/inventory.patnc >/dev/full
