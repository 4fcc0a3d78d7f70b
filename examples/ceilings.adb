--  Where priority ceilings can be seen in the lines: a task of priority 5 makes tasks of 8 and 15 ready from within an action, and runs on as long as its active
--  priority is that of the action's ceiling.
pragma Profile (Ravenscar);
pragma Partition_Elaboration_Policy (Sequential);
with Control_IO; use Control_IO;
package App is
   protected Signal_Low with Priority => 12 is
      procedure Give;
      entry Wait;
   private
      Given : Boolean := False;
   end Signal_Low;

   protected Signal_High with Priority => 15 is
      procedure Give;
      entry Wait;
   private
      Given : Boolean := False;
   end Signal_High;

   protected Work with Priority => 10 is
      procedure Do_It;
   private
      Steps : Integer := 0;
   end Work;

   task Low with Priority => 5;
   task Middle with Priority => 8;
   task High with Priority => 15;
end App;
package body App is
   protected body Signal_Low is
      procedure Give is
      begin
         Given := True;
      end Give;

      entry Wait when Given is
      begin
         Given := False;
         Put ("serve", 8);
      end Wait;
   end Signal_Low;

   protected body Signal_High is
      procedure Give is
      begin
         Given := True;
      end Give;

      entry Wait when Given is
      begin
         Given := False;
         Put ("serve", 15);
      end Wait;
   end Signal_High;

   protected body Work is
      procedure Do_It is
      begin
         Steps := Steps + 1;
         Put ("step", Steps);
         --  Middle (8) becomes ready, and has to wait: the active priority is 10
         Signal_Low.Give;
         Steps := Steps + 1;
         Put ("step", Steps);
         --  High (15) becomes ready, and runs once the inner action has ended
         Signal_High.Give;
         Steps := Steps + 1;
         Put ("step", Steps);
      end Do_It;
   end Work;

   task body High is
   begin
      Signal_High.Wait;
      Put ("high", 15);
   end High;

   task body Middle is
   begin
      Signal_Low.Wait;
      Put ("middle", 8);
   end Middle;

   task body Low is
   begin
      Put ("low", 1);
      Work.Do_It;
      Put ("low", 2);
   end Low;
end App;
with App;
procedure Main is
begin
   null;
end Main;
