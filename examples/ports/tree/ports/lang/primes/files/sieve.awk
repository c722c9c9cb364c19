# Writes the primes up to `most` as a C table into the file `to`.
BEGIN {
	print "static const int primes[] = {" > to
	for (n = 2; n <= most; n++) {
		if (n in crossed) continue
		print "\t" n "," > to
		for (k = n * n; k <= most; k += n) crossed[k]
	}
	print "};" > to
}
