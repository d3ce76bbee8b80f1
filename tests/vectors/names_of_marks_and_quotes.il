module \{
  wire \"
  wire \'
  wire \[
  wire \,
  wire $$
  wire \\
  wire \$
  wire $\
  wire \#
  wire \end
  wire \1'0
end
