       01  IN-REC.
           05 POLICY PIC X(12).
           05 HOLDER PIC X(30).
           05 BEGINS-ON PIC 9(8).
           05 ENDS-ON PIC 9(8).
           05 PREMIUM PIC S9(11)V99.
           05 SUM-INSURED PIC S9(16)V99.
           05 BALANCE PIC S9(13)V99.
           05 COVERS PIC 9(2).
           05 COVERS-PART.
               10 COVER OCCURS 1 TO 8 TIMES DEPENDING ON COVERS.
                   15 COVER-KIND PIC X(3).
                   15 COVER-SUM PIC S9(9)V99 COMP-3.
                   15 COVER-RATE PIC 9V9(3).
           05 COMMISSION PIC S9(13)V99.
           05 PAID-UP PIC S9(16)V99.
           05 PAID-LAST PIC S9(13)V99.
           05 PAID-BACK PIC S9(16)V99.
           05 CHANGED-BY PIC X(8).
