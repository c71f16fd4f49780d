           05  :T:-STREET  PIC X(6).
           05  :T:-TOWN    PIC X(5).
