"use strict";
// Made by tools/make_web.py: what the man page says of each refusal, and the font of examples/tiny.pfa.
const REFUSALS = {
  "file too long":
    "The file has more than 268,435,456 bytes, so it is not a single font: take the font out of the document first. Documents to pool may have no" +
    " more together: pool fewer.",
  "bad segment at N":
    "The PFB header at this offset of the file is wrong: it has a wrong type, or a length beyond the end. The file is cut off or damaged; fetch " +
    "it again in binary mode.",
  "no eexec":
    "The file has no currentfile eexec followed by a blank, a tab, CR or LF, so it is not a Type 1 font program. An AFM or PFM file has only " +
    "metrics: name the PFA or PFB file instead. If the file was compressed by gzip, decompress it; out of a PDF, a font has to be taken first. " +
    "Convert a TrueType or CFF font first, with FontForge for example, or with cfftot1 if it is CFF.",
  "cipher too short":
    "Fewer than four bytes follow eexec. The file is cut off; fetch it again.",
  "no Encoding":
    "There is no /Encoding before eexec. The file is not a Type 1 font, or its dictionary is built by a program that would have to be run. A font" +
    " editor can write the font anew.",
  "bad Encoding at N":
    "The Encoding doesn't parse from this offset on, in the text of all segments. It has a comment, is an array of fewer or more than 256 names, " +
    "or has a name of over 127 bytes, for example. Try mend; else write the Encoding as a table. A PostScript document mostly gives this, too, or" +
    " the next: take its font out first.",
  "no CharStrings":
    "The decrypted private text has no /CharStrings followed by a number and dict dup begin. The cipher has another key, or the font is " +
    "synthetic; neither is read. Or a file with a raw binary cipher was changed in transfer, as by a program that turns CR into LF: fetch it " +
    "again in binary mode.",
  "bad lenIV":
    "lenIV is not a number from 0 to 255. A font with lenIV -1, which means charstrings in the clear, is not read.",
  "bad Subrs at N":
    "An entry doesn't parse from this offset on, in the decrypted private text. Try mend: it reads over comments among the Subrs, such as the % " +
    "endarray of TIPA and VNTeX. Other comments inside the tables and charstrings of over 65,535 bytes are not read. Otherwise the file is " +
    "damaged; fetch it again.",
  "bad CharStrings at N":
    "An entry doesn't parse from this offset on, in the decrypted private text. Try mend: it reads over comments among the Subrs, such as the % " +
    "endarray of TIPA and VNTeX. Other comments inside the tables and charstrings of over 65,535 bytes are not read. Otherwise the file is " +
    "damaged; fetch it again.",
  "hybrid font":
    "The file has a second Subrs table. Hybrid fonts, which hold one font for each of two resolutions, are not read.",
  "no closefile":
    "Nothing closes the cipher. The file is cut off, or was written without its end; fetch it again, or write it anew with a font editor.",
  "no .notdef":
    "There is no glyph of this name, which the standard requires of every Type 1 font. Add one with a font editor.",
  "over a limit":
    "A font, or the merged font, is larger than LIMITS allows. Merge fewer fonts.",
  "too many tokens":
    "The glyphs that have to be run execute more tokens than --tokens allows; see LIMITS. Allow more if you trust the files.",
  "no glyph NAME":
    "The font has no glyph of this name, the first missing one that was asked for. t1subset list prints the names.",
  "no font NAME":
    "No place of a font in the documents has this name. t1subset fonts prints the names.",
  "no document: WHAT":
    "A document begins with %!, behind the words of a print job (^D, the universal exit, lines of PJL) or in an EPS file for DOS, and one job " +
    "holds one document. WHAT says what the file is: convert a PDF file with pdftops, decompress a packed file, split a file of several jobs.",
  "no code N":
    "The font's Encoding has no name for this code, the first such code that was asked for. t1subset list prints the codes; ask for the glyph by " +
    "its name.",
  "shells differ in PART":
    "Everything outside the tables has to be the same in fonts that merge; PART is the first that isn't: head, encoding, clear tail, private, " +
    "Subrs table, Subrs words, middle, CharStrings words or tail. The fonts come from different parents. Or another program cut them from one " +
    "parent: then head mostly means a tag of six capitals before the FontName, and Subrs table that Subrs after the last one used were left out: " +
    "use rejoin. Subsets that different programs cut mostly don't rejoin, since each program writes the texts around the tables in its own way: " +
    "for one font, dvips and pdfTeX differ in private, and Ghostscript differs from both in head.",
  "code N differs":
    "The fonts have different names for this code, the smallest such code. One of the fonts was re-encoded: merge subsets of one font.",
  "glyph NAME differs":
    "The fonts have different charstrings for this name, the smallest such name. They come from two versions of a font: cut both from one " +
    "version.",
  "glyph NAME lacks part NAME":
    "An accented glyph names a component that its own font lacks and the other has, so its drawing would change. Cut that font again with its " +
    "components.",
  "glyph NAME lacks subr N":
    "Of fonts to rejoin, the first that lacks a Subr which its glyph executes, and which another of the fonts has: a stub there would draw " +
    "something else without a word. The program that cut this font dropped the Subr, as some do where a call is computed. Cut the font anew with " +
    "another program, or from the font's file.",
  "subr N differs used by NAME":
    "The fonts have different charstrings for this Subr; NAME is the smallest glyph that executes it, if one does. They come from two versions of" +
    " a font: cut both from one version.",
  "subr N differs":
    "The fonts have different charstrings for this Subr; NAME is the smallest glyph that executes it, if one does. They come from two versions of" +
    " a font: cut both from one version.",
  "bad line N":
    "This line of a listing doesn't parse (lines are counted from 1). See LISTINGS.",
  "repeated in line N":
    "An earlier line has the same key. Remove one of the two.",
  "out of memory":
    "An allocation was refused. Nothing was written. Merge fewer fonts, or allow the program more memory.",
  "failed: read":
    "With exit status 3: this file couldn't be opened, or a system call that reads it failed or was interrupted too often. See whether its path " +
    "is right, and whether it is a file that you may read. If more files were named than can be open, raise the limit (ulimit -n), or merge in " +
    "steps.",
  "failed: write":
    "With exit status 3: this file couldn't be opened, or a system call that writes it failed or was interrupted. See whether its folder is " +
    "there, whether you may write it, and whether the disk is full.",
};
const EXAMPLE = [
  "%!FontType1-1.0: Tiny 001.001",
  "11 dict begin",
  "/FontName /Tiny def",
  "/FontType 1 def",
  "/PaintType 0 def",
  "/FontMatrix [0.001 0 0 0.001 0 0] def",
  "/Encoding 256 array",
  "0 1 255 {1 index exch /.notdef put} for",
  "dup 65 /X put",
  "dup 66 /Y put",
  "dup 194 /H put",
  "readonly def",
  "/FontBBox {0 0 500 700} def",
  "currentdict end",
  "currentfile eexec",
  "d9d66f633b846a989b9974b0179fc6cc4453a36a0d52edf270cf3672dda82b80",
  "be5e91653f77df00278182fc025644c890b8d7f241b13346ed3c0f3f79fc326b",
  "8a8ce986ec35759bda76d787eb7e82ac86c366fbbb4daf8076cdcf1511219c8b",
  "6bec34d23391d6cfd0e81a25b1094541a6804b56f52785e152a9fe0bd8d5339f",
  "e5708ad376053b633aa1db247888f5b6789e0ac53e6511b814c175a8d8566d48",
  "47f60e2630e32d136bee2262c6d7bb9d140ef7cc15a6cb785971b4b3db3d8003",
  "c51e1c65fb2ada191c1c370230de7f415d321c164c95c4ee29a9ce2cc8fb9d72",
  "ff8c99f0d33d4fed6f7747f838c88fa66426366cae9582382f858eb2e84dc93c",
  "035d84b88d33aa68c41e89e67169f1c9f0f1bcf8aa11ab5da794230a55126506",
  "eacdf0fa2042bb23c5a6683447ee35f889a7107e9dce9e01f8bc3012053af96b",
  "0d7e771d782943028a304e0eeed88dcb50410bdbedf24e2c69dea562cf7a16ba",
  "18df3377abdf93700fc74b0439374f251f8bef1154f701f3f8acf34f8bd47674",
  "fbf991c1514f7b348d44851268366bb2ca30f4d80afc78b123dd8589476fb300",
  "1488b55f44a7564c18d44ba1d591b4ede291a7b3e36fee32404ac251e82c6f8d",
  "ae5c1038d992f1779ce5763f848ace87200096f3a8d3218072085f052cec01b7",
  "d399090e25aecdfc2b1a2c238e1530a3598f35e26fb19bcfbab8c489375021d6",
  "84201d278e7f28c91f97bd6721544f953d514ca2a17ceb8abf58fee6e16c49d5",
  "e52805f865db96656704dea9a6469ad1733b708e1ddcb3dc584658c2a19a0d4a",
  "72f0d48e1ee8f4e403a22ea36e86ff6194342e6f397cf489df53f9b38dcfe1e9",
  "357cca7a3713d0063b799cdfee80156cec7a880097759a3b2c73f9c3efe048c8",
  "84095d4aa7c361613a028572d60aab31c6fda4265be889c7a42cdb06544d6939",
  "3b225b6733947ea65f1b8a558d1b575b4e4115ebb73778cbeb94a6428cecc04b",
  "ffcd413941945548f65a71bad6274692093ff3146f35c6f267ed89125184acfe",
  "094ffc3acc0d5187da632dcbeaabb561dd5cd14e79fb4db282a73411310fae39",
  "72bcabab06157d3f92bf1fd7f149b58d7c5b1310b36348471f2e852aaaac41d8",
  "fc7ffee6ce8e3bd6c2ad16388f09afba5a4c979fc9ae8ca5ad74c16495ef1a80",
  "16fd4668fe687baeb3f83618edd82b1c30fa15fa44e715393e6b62f58f9d48c6",
  "3506d4cdc13c8e2af8a3b04c1c133af91a7ccea9f0ddec4d5d3eaad53c17f40d",
  "161a81c7e5cc2fdd3a4903921cf2570361a9d53459e2326db02ea4daf3312166",
  "43dfbbc3dff2c436be9c7927180f6e8d219393324f919cea588ad733cf2bfb4b",
  "f1e0d16f5f9b3e673b5dde12d1bf7cf5f0f772e0f0fc154412542b863a974f21",
  "472c867eb01df122ea906979cf04366a",
  "0000000000000000000000000000000000000000000000000000000000000000",
  "0000000000000000000000000000000000000000000000000000000000000000",
  "0000000000000000000000000000000000000000000000000000000000000000",
  "0000000000000000000000000000000000000000000000000000000000000000",
  "0000000000000000000000000000000000000000000000000000000000000000",
  "0000000000000000000000000000000000000000000000000000000000000000",
  "0000000000000000000000000000000000000000000000000000000000000000",
  "0000000000000000000000000000000000000000000000000000000000000000",
  "cleartomark",
  "",
].join("\n");
