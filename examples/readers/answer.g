# Reads an answer of venum in GAP 4.
#
#     ./venum alone < examples/involutions.venum > s3.answer
#     gap> Read("examples/readers/answer.g");
#     gap> answer := ReadVenumAnswer("s3.answer");;
#     gap> Display(answer.matrices[1]);
#
# Row vectors are multiplied by matrices from the right, as in GAP: the module generator e1 times the first letter is
# answer.images[1] * answer.matrices[1]. The record has the components prime, field, letters, closed, dimension, basis (words as text),
# images (a row vector for each module generator) and matrices (in the order of the letters).

ReadVenumAnswer := function(file)
  local text, lines, at, words, number, vector, answer, generators, i;
  text := StringFile(file);
  if text = fail then Error("no such file"); fi;
  lines := SplitString(text, "\n");
  at := 0;
  words := function(head)
    local parts;
    at := at + 1;
    if at > Length(lines) then Error(head, " expected at the end"); fi;
    parts := SplitString(lines[at], " ");
    if parts[1] <> head then Error(head, " expected in line ", at); fi;
    return parts{[2 .. Length(parts)]};
  end;
  number := head -> Int(words(head)[1]);
  vector := head -> List(words(head), Int) * One(answer.field);
  if words("venum-answer") <> ["1"] then Error("not an answer of version 1"); fi;
  answer := rec(prime := number("prime"));
  answer.field := GF(answer.prime);
  answer.letters := words("letters");
  generators := number("module");
  answer.closed := number("closed");
  answer.dimension := number("dimension");
  answer.basis := List([1 .. answer.dimension], i -> words("basis")[1]);
  answer.images := List([1 .. generators], i -> vector("image"));
  answer.matrices := [];
  for i in [1 .. Length(answer.letters)] do
    words("letter");
    Add(answer.matrices, List([1 .. answer.dimension], j -> vector("row")));
  od;
  words("end");
  return answer;
end;
