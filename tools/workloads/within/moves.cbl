           MOVE A00 TO B00.
           MOVE B00 TO B01 B02.
           MOVE A01 TO B03.
           MOVE B03 TO B04 B05.
           MOVE A02 TO B06.
           MOVE B06 TO B07 B08.
           MOVE A03 TO B09.
           MOVE B09 TO B10 B11.
           MOVE A04 TO B12.
           MOVE B12 TO B13 B14.
           MOVE A05 TO B15.
           MOVE B15 TO B16 B17.
           MOVE A06 TO B18.
           MOVE B18 TO B19 B20.
           MOVE A07 TO B21.
           MOVE B21 TO B22 B23.
