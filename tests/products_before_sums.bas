10 PRINT 1 + 2 * 3 - 8 / 4
20 PRINT (1 + 2) * (-3)
30 PRINT 2.5e1 * .5 - 1.
40 END
