--  Control_IO for GNAT: programs of the subset compile with it unchanged, and write the lines that docs/FORMATS.md says.

package Control_IO is

   --  Writes a line with this label and this value.
   procedure Put (Label : String; Value : Integer);

   --  The value of an input channel at time 0.
   function Read (Channel : Integer) return Integer;

end Control_IO;
