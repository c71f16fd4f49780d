       01  OUT-REC.
           05 O-POLICY PIC X(15).
           05 O-SHORT-POLICY PIC X(8).
           05 O-HOLDER PIC X(35).
           05 O-INSURED PIC X(30).
           05 O-BEGINS-ON PIC 9(8).
           05 O-RENEWED-ON PIC 9(8) COMP-3.
           05 O-ENDS-ON PIC 9(8).
           05 O-PREMIUM PIC S9(11)V99.
           05 O-PREMIUM-TEXT PIC ZZ,ZZZ,ZZZ,ZZ9.99-.
           05 O-SUM-INSURED PIC S9(16)V99.
           05 O-SUM-TEXT PIC Z(15)9.99-.
           05 O-RISK PIC 9(3) COMP-3.
           05 O-FIRST-SUM PIC S9(13)V99 COMP-3.
           05 O-FIRST-TEXT PIC Z(12)9.99-.
           05 O-COVERS PIC 9(3) COMP-3.
           05 O-COVERS-PART.
               10 O-COVER OCCURS 1 TO 12 TIMES DEPENDING ON O-COVERS.
                   15 O-COVER-KIND PIC X(3).
                   15 O-COVER-SUM PIC S9(11)V99 COMP-3.
                   15 O-COVER-RATE PIC 9V9(4).
           05 O-BROKER PIC X(12).
           05 O-PAID-TO PIC X(12).
           05 O-COMMISSION PIC S9(9)V99.
           05 O-COMMISSION-TEXT PIC Z(8)9.99-.
           05 O-PAID-UP PIC S9(16)V99 COMP-3.
           05 O-PAID-UP-TEXT PIC Z(15)9.99-.
           05 O-CHANGED-BY PIC X(8).
