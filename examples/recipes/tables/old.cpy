       01  OLD-REC.
           05  POLICY          PIC X(6).
           05  COVERS          PIC 9.
           05  COVER OCCURS 1 TO 3 DEPENDING ON COVERS OF OLD-REC.
               10  KIND        PIC X(2).
               10  PREMIUM     PIC S9(3)V99 COMP-3.
