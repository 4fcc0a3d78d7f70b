with Ada.Characters.Handling;
with Ada.Command_Line;
with Ada.Exceptions;
with Ada.Finalization;
with Ada.Integer_Text_IO;
with Ada.Strings.Fixed;
with Ada.Text_IO;
with GNAT.OS_Lib;

package body Control_IO is

   Now                 : constant String := "0";
   Unhandled_Exception : constant := 3;

   subtype Channel_Number is Integer range 1 .. 8;

   Inputs : array (Channel_Number) of Integer := (others => 0);

   --  The main subprogram's name in upper case.
   function Main_Name return String is
      Command : constant String := Ada.Command_Line.Command_Name;
      Slash   : constant Natural := Ada.Strings.Fixed.Index (Command, "/", Ada.Strings.Backward);
   begin
      return Ada.Characters.Handling.To_Upper (Command (Natural'Max (Slash + 1, Command'First) .. Command'Last));
   end Main_Name;

   procedure Put (Label : String; Value : Integer) is
      Number : constant String := Ada.Strings.Fixed.Trim (Integer'Image (Value), Ada.Strings.Left);
   begin
      Ada.Text_IO.Put_Line (Now & " " & Main_Name & " " & Label & " " & Number);
   end Put;

   function Read (Channel : Integer) return Integer is (Inputs (Channel));

   --  Takes the lines of time 0 from a schedule.
   procedure Take_Inputs (Name : String) is
      File                 : Ada.Text_IO.File_Type;
      Time, Channel, Value : Integer;
   begin
      Ada.Text_IO.Open (File, Ada.Text_IO.In_File, Name);
      while not Ada.Text_IO.End_Of_File (File) loop
         Ada.Integer_Text_IO.Get (File, Time);
         Ada.Integer_Text_IO.Get (File, Channel);
         Ada.Integer_Text_IO.Get (File, Value);
         exit when Time > 0;
         Inputs (Channel) := Value;
      end loop;
      Ada.Text_IO.Close (File);
   end Take_Inputs;

   type Last_Line is new Ada.Finalization.Limited_Controlled with null record;

   --  Writes how the run ended, once main is done.
   overriding procedure Finalize (Object : in out Last_Line) is
      pragma Unreferenced (Object);
   begin
      Ada.Text_IO.Put_Line ("ended at " & Now);
   end Finalize;

   --  Takes the place of GNAT's own handler, which is called where main raises an exception.
   procedure Last_Chance (Occurrence : Ada.Exceptions.Exception_Occurrence)
     with Export, Convention => C, External_Name => "__gnat_last_chance_handler", No_Return;

   procedure Last_Chance (Occurrence : Ada.Exceptions.Exception_Occurrence) is
      Name : constant String := Ada.Exceptions.Exception_Name (Occurrence);
      Dot  : constant Natural := Ada.Strings.Fixed.Index (Name, ".", Ada.Strings.Backward);
   begin
      Ada.Text_IO.Put_Line ("unhandled " & Name (Dot + 1 .. Name'Last) & " in " & Main_Name & " at " & Now);
      Ada.Text_IO.Flush;
      GNAT.OS_Lib.OS_Exit (Unhandled_Exception);
   end Last_Chance;

   The_Last_Line : Last_Line;

begin
   if Ada.Command_Line.Argument_Count > 0 then
      Take_Inputs (Ada.Command_Line.Argument (1));
   end if;
end Control_IO;
