10 LET A = 1 &
   & + 2
20 PRI&
&NT A
30 END
