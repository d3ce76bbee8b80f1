module \constants
wire width 32 \a
connect \a -1
connect \a 32'11111111111111111111111111111111
connect \a 1
connect \a 32'1
attribute \escapes "\n\t\141\\\"\r"
wire \b
end
