       01  OUT-REC.
           05 O-HOLDERS PIC S9(4) COMP.
           05 O-COVERS PIC 9(2).
           05 O-NOTES PIC 9(3) COMP-3.
           05 O-POLICY PIC X(12).
           05 O-PREMIUM PIC S9(9)V99.
           05 O-FIRST-NAME PIC X(15).
           05 O-FIRST-SHARE PIC 9(5) COMP-3.
           05 O-HOLDERS-PART.
               10 O-HOLDER OCCURS 1 TO 5 TIMES DEPENDING ON O-HOLDERS.
                   15 O-HOLDER-NAME PIC X(12).
                   15 O-COVER OCCURS 0 TO 4 TIMES DEPENDING ON O-COVERS.
                       20 O-COVER-KIND PIC X(2).
                       20 O-SUM-INSURED PIC S9(7)V99 COMP-3.
                   15 O-SHARE-HELD PIC 9(3).
           05 O-NOTES-PART.
               10 O-NOTE-LINE OCCURS 0 TO 6 TIMES DEPENDING ON O-NOTES.
                   15 O-NOTE-TEXT PIC X(8).
           05 O-AGENT PIC X(10).
