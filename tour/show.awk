# Interleaves a script (the variable `script`) with the program's answers (standard input), for people.
# A line of comment is prose and is printed as it stands. A question or an operation is put in words, with the
# comment behind it as a remark; below it stands what came back. Setting up and writing words is not shown.

function question(word) {
    if (word[1] == "stage2") return name[word[4]] " " word[3]
    if (word[1] == "walk") return name[word[5]] " " word[4] " at " toupper(word[6])
    if (word[1] == "translate") return "guest " word[2] ": " name[word[4]] " " word[3]
    if (word[1] == "frame") return "the ledger of frame " word[2]
    if (word[1] == "peek") return "the word at " word[2]
    return operation(word)
}

# In the words of document 03, section 3.
function operation(word) {
    if (word[1] == "give") return "give " word[2] " to " word[3]
    if (word[1] == "map") return "map " word[2] " into " word[3] " at " word[4] ", rights " word[5]
    if (word[1] == "unmap") return "unmap " word[2] " from " word[3]
    if (word[1] == "share") return "share " word[2] "'s " word[3] " with " word[4] ", writing " word[5]
    if (word[1] == "unshare") return "unshare " word[2] "'s " word[3] " from " word[4]
    if (word[1] == "take") return "take " word[2] " from " word[3]
    return word[1] " " word[2]
}

# An answer in words, and how many descriptors a walk fetched.
function reply(word, answer,    fetched) {
    if (word[1] ~ /^(stage2|walk|translate)$/) {
        fetched = answer
        if (!sub(/^.* fetched /, "", fetched)) fetched = 0
        sub(/ fetched [0-9]+$/, "", answer)
        return sprintf("%-60s %2d fetched", answer, fetched)
    }
    if (word[1] ~ /^(frame|guest|peek)$/ || answer !~ /^[0-9]+$/) return answer
    return answer == "0" ? "done" : "refused, " answer ": " refusal[answer]
}

function show(line, answer,    word, remark) {
    remark = line
    if (!sub(/^[^#]*# */, "", remark)) remark = ""
    sub(/ *#.*/, "", line)
    split(line, word, " ")
    if (word[1] == "setup" || word[1] == "word") return
    line = sprintf("  %-" (word[1] ~ /^(stage2|walk)$/ ? 30 : 36) "s  %s", question(word), remark)
    sub(/ +$/, "", line)
    print line
    print "    -> " reply(word, answer)
}

BEGIN {
    name["r"] = "read"
    name["w"] = "write"
    name["x"] = "execute"
    # Document 03, section 2, in its order
    split("guest number not 1 to 4|the guest exists already, or is dirty|not enough free frames|" \
          "frame number out of range|no such guest|the frame isn't free|" \
          "address not a multiple of 4,096, or 2^48 or more|" \
          "rights not 1, 3, 5 or 7|the frame isn't a page this guest may use so|the address is mapped already|" \
          "the address isn't mapped|a guest can't share with itself|the page is still mapped or shared|" \
          "the guest is dirty", refusal, "|")
    while ((getline line < script) > 0) {
        if (line ~ /^(#.*)?$/) {
            sub(/^# ?/, "", line)
            print line
        } else if ((getline answer) > 0) {
            show(line, answer)
        } else {
            print "pageledger: no answer to: " line > "/dev/stderr"
            exit 1
        }
    }
}
