eof; 0
