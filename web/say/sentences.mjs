/**
 * What faults and answers mean, in sentences that the page and python/vicinity say. Behind the sign = this is JSON, since Python reads
 * it as such. A part in braces is one of those that are named below, or a number; of two sentences the first is that for one.
 */
export const SENTENCES = {
  "faults": {
    "TooManyLines": ["a log has at most 1,000,000 lines", "Write one log per session."], "LineTooLong": ["a line has at most 128 bytes", "End each line with LF or CR LF, and split long comments over several lines."],
    "Header": ["the first line isn't 'vicinity-log 1', 'vicinity-log 2' or 'vicinity-log 3'", "Write the header as line 1, without a byte order mark or spaces after it, ended by LF or CR LF."],
    "UnknownEntry": ["not an entry of a log of this version", "Write T, R or U, one space and hex digits, or only S or C; in version 2 also D or F; in version 3 also these, N, or H as R.", "Put comments on lines of their own, beginning with #."],
    "Hex": ["its hex digits aren't whole bytes, or another sign is among them", "Write two hex digits for each byte, with no spaces between or after them."], "ListedLength": ["a UID has sixteen digits", "Write all eight bytes of the UID, E0 first."],
    "NotVicinity": ["a UID begins with E0", "Write the most significant byte first, as in U E0..: a frame has the opposite order."],
    "SlotOutsideRound": ["no slot of a round is left for this line", "Add the T line that opened this slot, or remove this line."], "EntryAfterList": ["a T or F line can't follow a U line", "Move the U lines to the end of the log."],
    "DuplicateListed": ["an earlier U line has the same UID", "List each UID once."], "NotListed": ["a list of what is expected has U lines alone", "Take the other lines out of the list."],
    "Short": ["the frame is too short for a request", "{crc}"], "Crc": ["the CRC doesn't match the bytes before it", "{crc}"], "Extension": ["the request has the protocol extension flag set", "{count}"],
    "Reserved": ["the request has its reserved flag, bit 8, set", "{count}"], "OptionFlag": ["the request has the Option_flag set", "{count}"],
    "OtherCommand": ["the request is neither Inventory nor Stay Quiet", "If it changes no tag's state, remove it; else count again without it."],
    "InventoryFlag": ["the Inventory_flag doesn't fit the command", "It is 1 in an Inventory request and 0 in a Stay Quiet request."],
    "Afi": ["the request asks only one family of tags (AFI)", "Remove the request and its slots, and ask again without AFI."],
    "Length": ["the frame doesn't have the length that its fields require", "Compare it with what was sent or received, byte by byte."], "MaskTooLong": ["the mask is longer than 64 bits, or than 60 with sixteen slots", "{logger}"],
    "MaskPadding": ["bits above the mask's length aren't 0", "Send them as 0."], "SelectFlag": ["the Stay Quiet request has the Select_flag set", "{count}"], "NotAddressed": ["the Stay Quiet request has no UID", "{count}"],
    "ErrorFlag": ["the reply reports an error", "{damaged}"], "WrongMask": ["there is no such mask", "{logger}"], "": ["this line isn't part of a log", "{logger}"]
  },
  "replies": {
    "Crc": ["the CRC of the reply doesn't match the bytes before it", "{damaged} If the chip removes the CRC, add it again, low byte first."],
    "Length": ["the reply doesn't have twelve bytes", "{damaged} If the chip removes the CRC, add it again, low byte first."],
    "NotVicinity": ["the UID of the reply doesn't begin with E0", "It is sent low byte first: compare it with what was received. {damaged}"]
  },
  "tables": {
    "TooManyLines": ["a table has at most 1,000,000 lines", "Split the collection: each catalogue with its own logs."],
    "LineTooLong": ["a line has at most 16,384 bytes", "Leave the column with long texts out, or find the quote or line end that was lost."],
    "Utf8": ["the line isn't UTF-8, or has a line break in a cell", "Save the sheet as 'CSV UTF-8', and replace line breaks in cells by spaces."],
    "Quote": ["a quote isn't closed on its line, or stands where none may", "Let no line break stand in a cell, and a program write the quotes."],
    "Columns": ["it needs one column 'uid' (a table of places: one 'place' and one 'log')", "Name the column with the tag numbers 'uid', and with a table of places the column with the shelves 'place'.", "Put nothing above the line of names, not even sep=;."],
    "Result": ["this is what was written about a catalogue, and no catalogue", "Take the catalogue itself."],
    "Cells": ["the row has more or fewer cells than the first line", "Quote a cell that has the separator in it; let no line break stand in one."],
    "Uid": ["the cell 'uid' has no UID of 16 hex digits that begin with E0, nor the word 'none'", "Write 'none' where an item has no tag. Store the column as text: a spreadsheet rounds long numbers."],
    "UidElsewhere": ["another cell than 'uid' has a UID", "Put each tag on a row of its own, or take the UID out of the note."], "DuplicateUid": ["a row before has that UID", "Correct the UID of one of the two rows; delete one only if both are of the same item."],
    "Place": ["the cell 'place' (or 'log') is blank", "Write 'any' for an item without a fixed place; delete the row of a place without a log."],
    "Away": ["the cell 'away' is neither blank nor the word 'away'", "Write 'away', or leave the cell blank; a date or a name goes into another column."],
    "DuplicateLog": ["a row before has that log", "A log is of one place: delete one of the two rows."], "NoItems": ["the catalogue has no row", "Check that the file was written to its end."],
    "SameName": ["another log has that name, or is of a place by the same name", "Rename one of the two logs, or leave out the older one."],
    "Survey": ["this isn't a survey as vicinity survey writes it: it was cut off or changed", "Make the survey again, or copy its file again."],
    "utf16": ["it seems to be UTF-16, but cut off, changed, or without its mark", "Copy the file again, or save the table as 'CSV UTF-8'."],
    "unnamed": ["it is an item already: the names of the columns are missing", "Write a line above it with a name for each column, as uid,title,place. Overwrite nothing."],
    "turned": ["the bytes of the UID are in the opposite order, with E0 last", "Turn the bytes of each UID round, so that E0 comes first: A1000000000104E0 is E0040100000000A1."] },
  "first": { "\u0000": ["it seems to be UTF-16", "Save it as ASCII or UTF-8."], "\uFEFF": ["it begins with a byte order mark", "Save it as UTF-8 without one."], "\r": ["its lines end with CR alone", "Save it with LF, or CR LF, at the end of each line: editors call these Unix and Windows."] },
  "aLog": ["^(?:vicinity-(?!survey )|[TRHU] [0-9A-F]|[SCDNF]$|#)", "A log is text from the reader's software; its first line begins with 'vicinity-log'."],
  "files": {
    "surveys": ["^vicinity-survey ", ", but a text of surveys, which says what logs say of their fields", "Open it together with a catalogue (CSV)."],
    "pdf": ["^%PDF", ", but a PDF", "If it is an answer that was printed here, ask whoever sent it for the log, or for the page saved as HTML."],
    "picture": ["^(?:\uFFFDPNG\r?$|GIF8|\uFFFD{3,4}.{1,4}(?:JFIF|Exif))", ", but a picture", "If it shows an answer, ask whoever sent it for the log."],
    "page": ["^\\s*<(?:!doctype html|html)", ", but a web page", "If it was saved here as an answer, open it in the browser itself, as by a double click."],
    "sheet": ["^(?:PK\u0003\u0004|\uFFFD\uFFFD\u0011[\u0871\uFFFD])", ", but a ZIP file, a spreadsheet or a document", "Unpack a ZIP file, and open the logs that are in it.",
      "Save a spreadsheet of what should be here as CSV (in Excel: Save As, CSV UTF-8; in LibreOffice: Save As, Text CSV; in Numbers: Export To, CSV), its column of tag numbers named 'uid'; open that with the logs."],
    "packed": ["^(?:\u001F\uFFFD\b|BZh|\uFFFD7zXZ|7z\uFFFD\uFFFD'|Rar!|\\(\uFFFD/\uFFFD)", ", but a packed file", "Unpack it, and open what was in it."],
    "trace": ["^\\s*(?:\\[[+=!#?|-]\\] |\\[(?:usb|bt|fpc)|pm3 |proxmark|Recorded activity|Start \\| +End \\| Src)", ", but a trace of a Proxmark",
      "It hasn't the slots in which no tag answered, so it can't show whether a tag was missed.", "Ask whoever maintains a reader for a log: docs/READERS.md of vicinity says which readers can write one, and how."],
    "frames": ["^(?:\\W*[\\d:.,T-]+Z?\\W+)?(?:\\W*(?:TX|RX|sent|recv|received|Rdr|Tag|Reader|->|<-|[<>])\\W*)?(?:[0-9A-F]{2} ){3}|^\\W*\\d{4}-\\d\\d-\\d\\d[ T]\\d\\d:\\d\\d[^,;\\t]*$", ", but seems to be a trace, or a reader's own log", "Counting again gives the same: ask whoever maintains the reader to have it write logs (docs/READERS.md of vicinity says how)."],
    "json": ["^\\s*(?:\\{\\s*[\"}]|\\[\\s*[{\"\\[]|[{\\[]\\s*$)", ", but JSON, which programs exchange", "Open the log of which it was written, or a table (CSV)."],
    "turned": ["^\\W{0,3}(?!E0)(?:[0-9A-F]{2}[ :.-]?){7}E0\\W{0,3}$", ", but a list of tag numbers whose bytes are in the opposite order, with E0 last",
      "If it is what should be here: turn the bytes of each number round, so that E0 comes first, write uid as the first line, and open it with the logs."],
    "list": ["^\\W{0,3}(?:uid|(?:0x)?E0(?:[ :.-]?[0-9A-F]{2}){7})\\W{0,3}$", ", but a list of tag numbers", "If it is what should be here: write uid as its first line, and open it together with the logs.", "By itself it can't show whether a tag was missed: it says which tags were read, not what was asked."],
    "binary": ["[\u0000\uFFFD]", ": it isn't text in UTF-8", "If it is text, in UTF-16 for example, save it as ASCII or UTF-8."],
    "read": ["^(?=.*\\d\\d:\\d\\d).*E0(?:[ :.-]?[0-9A-F]{2}){7}", ", but what a reader has read, times and tag numbers", "It doesn't say what was asked, so it can't show whether a tag was missed, and counting again gives the same: ask whoever maintains the reader to have it write logs (docs/READERS.md of vicinity says how)."],
    "table": ["[,;\\t|]", "", "If it is a table of what should be here: name the column of tag numbers 'uid' in its first row, and open it with the logs."],
    "empty": ["^$", ": its first line is empty", "Choose another file, copy it again, or count again."],
    "text": ["", ", but another text: a log begins with 'vicinity-log'", "If the reader's software wrote it, counting again gives the same: ask whoever maintains the reader to have it write logs (docs/READERS.md of vicinity says how)."]
  },
  "failures": {
    "none": "this browser doesn't run what judges it", "memory": "there isn't enough memory for it: close other tabs and programs, and open it again", "trap": "the page has failed while it judged this: open it anew, and if it happens again, send the file to whoever maintains vicinity"
  },
  "requests": {
    "hidden": "To know whether a strong reply hid a weaker one, silence each tag that was heard, and ask all in one slot, until none answers:",
    "heard": "To know whether the reader still heard at the end, switch the field off and on, write F, and ask for a tag that was found.", "noCycles": "That takes a log of version 2 or 3: one of version 1 has no line for it.",
    "silenced": "Switch the field off and on, write F, and send {} for tags that were silenced before they were heard: only then do they answer.",
    "newVersion": "Tags that were silenced before they were heard answer only after a field cycle: begin a new log, of version 3."
  },
  "catalogues": {
    "cut": "of which the last has no line end, so the file may have been cut off", "noPlaces": "The catalogue has no column 'place', so an item on a wrong shelf isn't noticed, nor a shelf that wasn't counted.",
    "like": "^[\\W_]*(?:([p\u0440]l[a\u0430][c\u0441][e\u0435]s?)|shel(?:f|ves)|(?:shelf|place)[ _-]?(?:marks?|names?|no|numbers?|ids?|codes?)|locations?|(?:stand)?ort|regal|raum|lieu|emplacement|salle|lugar|luogo|plaats|rooms?|bays?|racks?|bins?|box(?:es)?|drawers?|cabinets?)[\\W_]*$",
    "meant": "If column {} says where each item belongs, rename it to place."
  },
  "parts": {
    "count": "Don't change this line. Count again, using only Inventory and Stay Quiet.", "logger": "Fix the software that writes the log.",
    "crc": "Write the frame as it was on the air, with both bytes of its CRC, low byte first. If the chip removes the CRC, add it again.",
    "damaged": "A reply that was damaged gets the line D in a log of version 2 or 3, or N in version 3 if it may have been noise; in version 1 its slot, and the rest of its round, get no line."
  },
  "steps": {
    "nothing": ["Nothing to do."], "hears": ["Nothing to do, if the reader worked to the end: whoever maintains it can see whether it did."],
    "empty": ["If items should be here: check the antenna, switch the reader off and on, and count again.", "If nothing should be here: lay an item with a tag at the antenna, and count again. Once it is found, there is nothing else to do."],
    "oneMore": ["Spread out items that lie on each other, and count again.",
      "If it stays so, send the log and this page (printed as PDF) to whoever maintains the reader: it stopped without asking all tags once more. Asking them all, until none answers, shows whether a strong reply hid a weaker one."]
  },
  "answers": {
    "holds": "This is said of tags that had power, heard the reader, and were heard when they answered: one that never answers is in no log.",
    "contradicts": "This count can't be used. The log contradicts itself: ", "cannotBeUsed": "This log can't be used",
    "noLog": "This text isn't a log", "foreign": "This file isn't a log{}.", "notFinished": "Not finished: ", "empty": "No tag answered, and nothing is listed.",
    "emptyField": "No tag answered.", "noneAnswered": ["No tag answered, but {} is listed.", "No tag answered, but {} are listed."],
    "allListed": ["The one listed tag is here", "All {} listed tags are here"], "tagsHere": ["{} tag is here", "{} tags are here"],
    "noOthers": [", and no other.", ", and no others."], "noOthersHeard": [", and no other, if the reader heard to the end.", ", and no others, if the reader heard to the end."],
    "ifHidden": "; others may be, if stronger replies hid them.", "othersAre": "others are too", "othersMayBe": "others may be too",
    "noneRead": "tags are here, but none was read", "noneProved": "no tag is proved to be here, but some may be", "absent": "{} didn't answer",
    "unlisted": ["{} tag here isn't listed", "{} tags here aren't listed"], "doubtful": ["{} isn't proved", "{} aren't proved"],
    "silenced": ["{} tag may be here or not, since it was silenced before it was heard", "{} tags may be here or not, since they were silenced before they were heard"], "silencedListed": ["{} listed tag isn't proved, since it was silenced before it was heard", "{} listed tags aren't proved, since they were silenced before they were heard"],
    "asked": ["once or more", "{} times or more"], "noList": " The log has no list to compare with."
  }
};
