# Writes each source of a script of `lockmon run` into a file: SCRIPT.NAME.mac, with the name of the image in small letters.
/^ASSEMBLE / {
    file = FILENAME
    sub(/.*\//, "", file)
    sub(/run$/, tolower($2) ".mac", file)
    next
}
/^ENDASM/ { close(file); file = "" }
file != "" { print > file }
