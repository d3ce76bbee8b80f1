attribute \x 1
end
