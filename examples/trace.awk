# Says a recorded run in the words of its source: awk -f examples/trace.awk SOURCE MAP TRACE
# MAP is what `asl map` prints of the source, TRACE what `asl log --trace` prints of the run. Each event has a line: its number, its
# thread, the line and the piece of the source that its instruction is of, and the reply.
FNR == 1 { file++ }
file == 1 { text = text $0 "\n" }
file == 2 && $1 == "place" {
  piece = substr(text, $3 + 1, $4 - $3)
  gsub(/[ \t\r\n]+/, " ", piece)
  said[$2] = "line " split(substr(text, 1, $3 + 1), lines, "\n") ": " piece
}
file == 3 {
  front = $1 " " $2 " " ($3 == "-" ? "(had ended)" : said[$3])
  $1 = $2 = $3 = $4 = ""
  sub(/^ +/, "")
  print front " -> " $0
}
