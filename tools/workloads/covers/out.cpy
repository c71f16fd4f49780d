       01  OUT-REC.
           05 O-POLICY PIC X(12).
           05 O-HOLDER PIC X(30).
           05 O-BEGINS-ON PIC 9(8) COMP-3.
           05 O-ENDS-ON PIC 9(8) COMP-3.
           05 O-PREMIUM PIC S9(11)V99 COMP-3.
           05 O-SUM-INSURED PIC S9(16)V99 COMP.
           05 O-BALANCE PIC S9(13)V99 COMP-3.
           05 O-COVERS PIC 9(3) COMP-3.
           05 O-COVERS-PART.
               10 O-COVER OCCURS 1 TO 8 TIMES DEPENDING ON O-COVERS.
                   15 O-COVER-KIND PIC X(3).
                   15 O-COVER-SUM PIC S9(9)V99 COMP-3.
                   15 O-COVER-RATE PIC 9V9(3).
           05 O-COMMISSION PIC S9(13)V99 COMP-3.
           05 O-PAID-UP PIC S9(16)V99 COMP-3.
           05 O-PAID-LAST PIC S9(13)V99 COMP-3.
           05 O-PAID-BACK PIC S9(16)V99 COMP.
