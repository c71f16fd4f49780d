       01  IN-REC.
           05 POLICY PIC X(10).
           05 HOLDERS PIC 9(2).
           05 COVERS PIC S9(4) COMP.
           05 HOLDERS-PART.
               10 HOLDER OCCURS 1 TO 5 TIMES DEPENDING ON HOLDERS.
                   15 HOLDER-NAME PIC X(12).
                   15 COVER OCCURS 0 TO 4 TIMES DEPENDING ON COVERS.
                       20 COVER-KIND PIC X(2).
                       20 SUM-INSURED PIC S9(7)V99 COMP-3.
                   15 SHARE-HELD PIC 9(3).
           05 PREMIUM PIC S9(7)V99 COMP-3.
           05 NOTES PIC 9(2).
           05 NOTES-PART.
               10 NOTE-LINE OCCURS 0 TO 6 TIMES DEPENDING ON NOTES.
                   15 NOTE-TEXT PIC X(8).
           05 AGENT PIC X(8).
