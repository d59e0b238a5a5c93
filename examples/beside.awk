# Prints each statement above its reply. First the file of the statements, then that of the replies: an admin line has one line of reply, a
# statement all up to the one that begins with ok, rows or ERROR.
NR == FNR { asked[++count] = $0; next }
!open { print "> " asked[++at]; open = 1 }
{ print "  " $0 }
asked[at] ~ /^!/ || /^(ok|rows|ERROR|unknown)/ { open = 0 }
