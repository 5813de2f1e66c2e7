# The page as the browser has it, as program.awk writes what the program wrote. What is read is the text on the page; of replies and
# the answer the line beside their words. The minus sign of the page is to stand there as -.
BEGIN { RS = "<" }
function attribute(name,    at, text) {
    at = index($0, " " name "=\"")
    if (at == 0)
        return ""
    text = substr($0, at + length(name) + 3)
    return substr(text, 1, index(text, "\"") - 1)
}
function text() { return substr($0, index($0, ">") + 1) }
{ is = attribute("data-is") }
/^article/ { channel = attribute("data-channel"); order[++channels] = channel }
/^tbody/ { list = 1 }
/^\/tbody/ { list = 0 }
/^li/ && attribute("data-reply") != "" { reply[++replies] = attribute("data-reply") }
/^li/ && attribute("data-answer") != "" { answer = attribute("data-answer") }
/^b / && attribute("id") == "looks" { looks = text() }
/^b / && attribute("id") == "number" { number = text() }
is != "" && list == 1 { if (is == "desk") waits++; waiting[waits, is] = text() }
is != "" && !list { value[channel, is] = text() }
END {
    for (i = 1; i <= replies; i++)
        print "reply " reply[i]
    print "answer " answer
    print "call " number " looks " looks
    for (i = 1; i <= channels; i++) {
        c = order[i]
        precedence = value[c, "precedence"]
        print "channel " c " key " value[c, "key"] " precedence " (precedence ~ /^-?[0-9]+$/ ? precedence : "") \
              " locked " (value[c, "locked"] == "locked") " stopped " (value[c, "stopped"] == "stopped") \
              " writes " value[c, "writes"] " naming " value[c, "naming"]
    }
    for (i = 1; i <= waits; i++)
        print "waits " waiting[i, "desk"] " " waiting[i, "id"] " " waiting[i, "precedence"] " held " (waiting[i, "held"] == "held") \
              " since " waiting[i, "since"]
}
