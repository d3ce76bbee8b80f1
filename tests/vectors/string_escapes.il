module \m
parameter \a "\n\t\"\\"
parameter \b "\r\a\x\e\ \8\9\#\'"
parameter \c "\1\12\123\1234\18\377\0409"
parameter \d ""
parameter \e "\11\012\015\177"
parameter \f "\"\\n"
end
