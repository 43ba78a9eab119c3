use crate::answer::Answer;
use crate::lists::each;
use pt_words::{Line, Task, WordsFault, read};
use std::alloc::{AllocError, Global};

/// Answers what the words of a command line ask for.
pub fn answer(alloc: Global, section: &str, question: &str, out: &mut Answer) {
    match section {
        "lines" | "no lines" => tell(alloc, question, out),
        _ => out.no_such_section(),
    }
}

/// A word; `""` is the one without characters.
pub fn word(alloc: Global, written: &str) -> Result<String, AllocError> {
    String::from_str(alloc, if written == "\"\"" { "" } else { written })
}

fn tell(alloc: Global, question: &str, out: &mut Answer) {
    let words = out.or(each(alloc, question, " ", word), Vec::new(alloc));
    let read = read(alloc, &words);
    drop(words);
    match read {
        Ok(line) => tell_line(alloc, line, out),
        Err(WordsFault::Refused) => out.text("refused"),
        Err(WordsFault::Memory) => out.note(Err(AllocError)),
    }
}

fn tell_line(alloc: Global, line: Line, out: &mut Answer) {
    match line.task {
        Task::Run => out.text("run"),
        Task::Check => out.text("check"),
        Task::Generate(stages) => tell_stages(alloc, "generate ", stages, out),
        Task::Demonstrate(stages) => tell_stages(alloc, "demonstrate ", stages, out),
    }
    out.text(", workers ");
    out.number(alloc, i128::from(line.workers));
    out.text(", budget ");
    out.number(alloc, i128::from(line.budget));
}

fn tell_stages(alloc: Global, task: &str, stages: u32, out: &mut Answer) {
    out.text(task);
    out.number(alloc, i128::from(stages));
}
