10 program Cubes
20 PRINT 8 ^ (1 / 3)
30 END
