module \names
wire \sig42
wire $sig42
connect \sig42 $sig42
end
