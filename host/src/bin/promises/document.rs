//! The document as rows and paragraphs, and what stands in backticks there, with the text around it.

/// What stands in one pair of backticks.
pub struct Token {
    pub name: String,
    pub line: usize,
    /// The text since the token before it, or since the start.
    pub before: String,
}

/// The tokens of a text, and what stands behind the last one.
pub struct Text {
    pub tokens: Vec<Token>,
    pub rest: String,
    pub line: usize,
    pub whole: bool,
}

pub enum Block {
    Heading(Text),
    Paragraph(Text),
    Head(Vec<Text>),
    Row(Vec<Text>),
}

/// Tokens from `first` up to `end` that stand in one list.
pub struct Group {
    pub first: usize,
    pub end: usize,
}

impl Text {
    fn new(text: &str, line: usize) -> Text {
        let mut at = line;
        let mut tokens = Vec::new();
        let mut before = String::new();
        for (i, part) in text.split('`').enumerate() {
            if i % 2 == 0 {
                before = part.replace('\n', " ");
            } else {
                tokens.push(Token {
                    name: part.to_string(),
                    line: at,
                    before: std::mem::take(&mut before),
                });
            }
            at += part.matches('\n').count();
        }
        let whole = text.matches('`').count().is_multiple_of(2);
        Text {
            tokens,
            rest: before,
            line,
            whole,
        }
    }

    /// The text behind a group, up to the next token.
    pub fn behind(&self, group: &Group) -> &str {
        match self.tokens.get(group.end) {
            Some(next) => &next.before,
            None => &self.rest,
        }
    }

    pub fn before(&self, group: &Group) -> &str {
        &self.tokens[group.first].before
    }

    pub fn names(&self, group: &Group) -> &[Token] {
        &self.tokens[group.first..group.end]
    }

    pub fn groups(&self) -> Vec<Group> {
        let mut groups: Vec<Group> = Vec::new();
        for (i, token) in self.tokens.iter().enumerate() {
            let goes_on = matches!(token.before.as_str(), ", " | " and " | ", and " | " to ");
            match groups.last_mut() {
                Some(group) if goes_on => group.end = i + 1,
                _ => groups.push(Group {
                    first: i,
                    end: i + 1,
                }),
            }
        }
        groups
    }
}

fn cells(line: &str, number: usize) -> Vec<Text> {
    let row = line.trim();
    let inner = row.strip_prefix('|').unwrap_or(row);
    let inner = inner.strip_suffix('|').unwrap_or(inner);
    inner
        .split('|')
        .map(|cell| Text::new(cell.trim(), number))
        .collect()
}

fn paragraph(blocks: &mut Vec<Block>, lines: &mut Vec<&str>, next: usize) {
    if lines.is_empty() {
        return;
    }
    let first = next - lines.len();
    blocks.push(Block::Paragraph(Text::new(&lines.join("\n"), first)));
    lines.clear();
}

pub fn blocks(text: &str) -> Vec<Block> {
    let mut blocks = Vec::new();
    let mut open = Vec::new();
    let mut in_table = false;
    let mut last = 0;
    for (i, line) in text.lines().enumerate() {
        let number = i + 1;
        last = number;
        let is_row = line.starts_with('|');
        let is_heading = line.starts_with('#');
        if !is_row && !is_heading && !line.trim().is_empty() {
            open.push(line);
            in_table = false;
            continue;
        }
        paragraph(&mut blocks, &mut open, number);
        if is_heading {
            blocks.push(Block::Heading(Text::new(line, number)));
        } else if is_row && in_table {
            blocks.push(Block::Row(cells(line, number)));
        } else if is_row {
            blocks.push(Block::Head(cells(line, number)));
        }
        in_table = is_row;
    }
    paragraph(&mut blocks, &mut open, last + 1);
    blocks
}
