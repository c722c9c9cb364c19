# Writes a table of fields between `|` as a page into the file `to`.
BEGIN {
	FS = "|"
	print "<table>" > to
}
{
	cell = NR == 1 ? "th" : "td"
	row = ""
	for (i = 1; i <= NF; i++) row = row "<" cell ">" $i "</" cell ">"
	print "<tr>" row "</tr>" > to
}
END { print "</table>" > to }
