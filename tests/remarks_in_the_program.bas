10 REM one
20
30 END ! two
