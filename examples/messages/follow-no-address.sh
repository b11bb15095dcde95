"$swid" follow nowhere
