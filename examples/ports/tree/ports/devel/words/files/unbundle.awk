# Writes each file of a bundle into the folder `to`. A line '== NAME' begins the
# file NAME; the lines up to the next such line are its contents.
/^== / {
	if (file) close(file)
	file = to "/" $2
	printf "" > file
	next
}
file { print > file }
