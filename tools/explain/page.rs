//! The parts as one page that needs nothing beside it. It is HTML that is XML too.

use crate::parts::{Column, Part, Table};
use crate::svg::escaped;

const STYLE: &str = "
:root{color-scheme:light dark;--ink:#1a1a1a;--paper:#ffffff;--rule:#c4c4c4;--faint:#555555}
@media screen and (prefers-color-scheme:dark){
:root{--ink:#f0f0f0;--paper:#17191c;--rule:#4a4e55;--faint:#b4b8bf}
}
@page{size:A4;margin:15mm}
body{font:16px/1.45 sans-serif;color:var(--ink);background:var(--paper)}
body{max-width:50rem;margin:1.5rem auto;padding:0 1rem}
h1{font-size:1.4rem}
h2{font-size:1.15rem;margin:1.8rem 0 .4rem;break-after:avoid}
p{margin:.25rem 0;overflow-wrap:anywhere}
table{border-collapse:collapse;margin:.8rem 0;font-variant-numeric:tabular-nums;font-size:.9em}
caption{text-align:left;font-weight:bold;padding:.2rem 0;break-after:avoid}
th,td{padding:.1rem .7rem .1rem 0;text-align:right;white-space:nowrap;border-bottom:1px solid var(--rule)}
th{font-weight:normal;color:var(--faint);white-space:normal;vertical-align:bottom}
.place{text-align:left}
tr.last td{font-weight:bold;border-bottom:0}
tr,.short,svg{break-inside:avoid}
h2+p,p:has(+figure){break-after:avoid}
.below{margin:-.5rem 0 1.4rem}
figure{margin:1.2rem 0}
figure svg{display:block;max-width:100%;height:auto}
figcaption{break-before:avoid;font-size:.85em;color:var(--faint)}
@media print{body{font-size:10pt;max-width:none;margin:0;padding:0}#cell{width:75%}}
";

/// A table of more rows may be parted between two sheets.
const SHORT: usize = 20;

fn cell(tag: &str, column: &Column, text: &str) -> String {
    let class = if column.place { " class=\"place\"" } else { "" };
    format!("<{tag}{class}>{}</{tag}>", escaped(text))
}

fn row(class: &str, columns: &[Column], cells: &[String]) -> String {
    let cells: String = columns.iter().zip(cells).map(|(column, text)| cell("td", column, text)).collect();
    format!("<tr{class}>{cells}</tr>\n")
}

fn table_written(table: &Table) -> String {
    let columns = &table.columns;
    let head: String = columns.iter().map(|column| cell("th", column, column.name)).collect();
    let body: String = table.rows.iter().map(|cells| row("", columns, cells)).collect();
    let caption = match table.caption.as_str() {
        "" => String::new(),
        caption => format!("<caption>{}</caption>\n", escaped(caption)),
    };
    let below = match table.below.as_str() {
        "" => String::new(),
        below => format!("<p class=\"below\">{}</p>\n", escaped(below)),
    };
    let class = if table.rows.len() <= SHORT { "short" } else { "long" };
    let last = row(" class=\"last\"", columns, &table.last);
    format!(
        "<div class=\"{class}\">\n<table>\n{caption}<thead><tr>{head}</tr></thead>\n\
         <tbody>{body}{last}</tbody>\n</table>\n{below}</div>\n"
    )
}

fn part_written(part: &Part) -> String {
    match part {
        Part::Title(title) => format!("<h1>{}</h1>\n", escaped(title)),
        Part::Heading(heading) => format!("<h2>{}</h2>\n", escaped(heading)),
        Part::Line(line) => format!("<p>{}</p>\n", escaped(line)),
        Part::Table(table) => table_written(table),
        Part::Picture { svg, caption } => {
            format!("<figure>\n{svg}<figcaption>{}</figcaption>\n</figure>\n", escaped(caption))
        }
    }
}

pub fn written(parts: &[Part]) -> String {
    let title = parts.iter().find_map(|part| if let Part::Title(title) = part { Some(title) } else { None });
    let title = escaped(title.map_or("", |title| title));
    let body: String = parts.iter().map(part_written).collect();
    format!(
        "<!DOCTYPE html>\n<html xmlns=\"http://www.w3.org/1999/xhtml\" lang=\"en\">\n<head>\n\
         <meta charset=\"utf-8\"/>\n<meta name=\"viewport\" content=\"width=device-width\"/>\n\
         <title>{title}</title>\n<style>{STYLE}</style>\n</head>\n<body>\n{body}</body>\n</html>\n"
    )
}
