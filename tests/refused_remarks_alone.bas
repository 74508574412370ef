10 REM one
20 ! two
